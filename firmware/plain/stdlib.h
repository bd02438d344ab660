unsigned long long strtoull(const char *text, char **end, int base);
void exit(int status);
