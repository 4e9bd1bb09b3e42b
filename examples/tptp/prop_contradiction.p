% status: Unsatisfiable
% uses: f_p f_n
fof(f_p, axiom, p).
fof(f_n, axiom, ~ p).
