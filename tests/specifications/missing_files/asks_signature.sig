sig asks_signature.
kind i type.
accum_sig half, none.
