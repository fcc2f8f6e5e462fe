sig third.
