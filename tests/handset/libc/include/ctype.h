/* The letters of ASCII. */
#ifndef CTYPE_H
#define CTYPE_H

int islower(int byte);
int toupper(int byte);

#endif
