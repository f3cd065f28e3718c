#if 1
'ab'