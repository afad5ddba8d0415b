int setvbuf(void *file, char *buffer, int mode, unsigned long size) { return 0; }
