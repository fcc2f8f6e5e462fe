sig inner.
/* 