int x; \
/* x