"""A search for the inputs that cost the most: what inputs are made of (genes, made), the calls that read them (calls),
and the climb from one input to a costlier one (climb)."""
