goto x;
#error x
'ab'