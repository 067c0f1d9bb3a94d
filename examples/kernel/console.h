/* The console. */
#ifndef CONSOLE_H
#define CONSOLE_H

/* Prints a format in which %s is a text, %u a uint64_t in decimal and %x one in hexadecimal. */
void say(const char *format, ...);

/* Waits until all that was printed is out. */
void wait_for_console(void);

#endif
