goto x;
#error x