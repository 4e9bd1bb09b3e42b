% status: Theorem
% uses: f_0 f_1 f_2 f_3 f_4 f_5 f_6 f_7 f_8 f_9 f_10 goal
fof(f_0, axiom, p0).
fof(f_1, axiom, p0 => p1).
fof(f_2, axiom, p1 => p2).
fof(f_3, axiom, p2 => p3).
fof(f_4, axiom, p3 => p4).
fof(f_5, axiom, p4 => p5).
fof(f_6, axiom, p5 => p6).
fof(f_7, axiom, p6 => p7).
fof(f_8, axiom, p7 => p8).
fof(f_9, axiom, p8 => p9).
fof(f_10, axiom, p9 => p10).
fof(goal, conjecture, p10).
