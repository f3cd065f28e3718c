int main(void) {
  goto x;
}