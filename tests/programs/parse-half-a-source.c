#include <string.h>
int main(void) { ch