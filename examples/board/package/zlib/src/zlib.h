int compress(void);
