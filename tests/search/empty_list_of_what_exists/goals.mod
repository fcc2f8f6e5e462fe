module goals.
