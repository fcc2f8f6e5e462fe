module stlc.
of (app M N) T :- of M (arr U T), of N U.
of (abs T R) (arr T U) :- pi x\ (of x T => of (R x) U).
