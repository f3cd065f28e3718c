int x;
#error x