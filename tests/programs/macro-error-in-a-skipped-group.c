#if 0
#error x
#endif