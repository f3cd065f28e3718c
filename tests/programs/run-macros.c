#define SIZE 8
#define SET(c) memset(b, c, SIZE)
#include <string.h>
int main(void) { char b[8]; SET(65); return 3; }
