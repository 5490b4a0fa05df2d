/* the large library */
int puts(const char *text);
char *setlocale(int what, const char *name);
