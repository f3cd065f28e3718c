#error x
"a
