sig stlc.
kind tm, ty type.
type app tm -> tm -> tm.
type abs ty -> (tm -> tm) -> tm.
type arr ty -> ty -> ty.
type of tm -> ty -> o.
