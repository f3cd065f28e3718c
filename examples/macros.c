// The form that is compiled so far, by way of macros: at level 3 the call sets three bytes of eight.
#include <string.h>
#include <string.h>
#define SIZE 8
#define fill(array, byte) \
    memset(array, byte, _FORTIFY_SOURCE)

int main(void) {
#ifdef fill
    char b[SIZE];
    fill(b, 65);
#endif
    return 5;
}
