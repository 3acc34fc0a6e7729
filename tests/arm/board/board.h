/* A program on the board: it has no C library, and speaks by semihosting, calls that the emulator or a debugger answers. */
#ifndef BOARD_H
#define BOARD_H

void say(const char *words);
void say_number(unsigned long number);
/* Ends the emulator with this exit status. */
void leave(int status);
#endif
