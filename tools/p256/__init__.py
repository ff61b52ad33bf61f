"""What the tools know of ECDSA P-256: the curve in whole numbers, forms by their standards, other programs, cases."""
