% status: Unsatisfiable
% uses: f_a f_b f_c f_ab1 f_ab2 f_ac1 f_ac2 f_bc1 f_bc2
cnf(f_a, axiom, a1 | a2).
cnf(f_b, axiom, b1 | b2).
cnf(f_c, axiom, c1 | c2).
cnf(f_ab1, axiom, ~ a1 | ~ b1).
cnf(f_ab2, axiom, ~ a2 | ~ b2).
cnf(f_ac1, axiom, ~ a1 | ~ c1).
cnf(f_ac2, axiom, ~ a2 | ~ c2).
cnf(f_bc1, axiom, ~ b1 | ~ c1).
cnf(f_bc2, axiom, ~ b2 | ~ c2).
