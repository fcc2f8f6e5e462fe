module wrong.
is_nat z.
is_nat zz.
