/* the small library */
int puts(const char *text);
