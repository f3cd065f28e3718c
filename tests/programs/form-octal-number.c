#include <string.h>
int main(void) { char b[010]; memset(b, 65, 8); return 3; }
