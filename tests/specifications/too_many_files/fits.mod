module fits.
