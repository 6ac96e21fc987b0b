// No file gets a second name, as on a file system without hard links.
int link(const char *from, const char *to) { (void)from; (void)to; errno = EPERM; return -1; }
