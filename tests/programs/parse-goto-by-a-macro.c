#define jump goto
int main(void) { jump x; }