#ifndef LIBC_SIGNAL_H
#define LIBC_SIGNAL_H
void (*signal(int number, void (*handler)(int)))(int);
#define SIG_IGN ((void (*)(int))1)
#define SIGPIPE 13
#define SIGXFSZ 25
#endif
