% status: Theorem
% uses: f_def goal
fof(f_def, axiom, ! [A, B] : (subset(A, B) <=> ! [X] : (in(X, A) => in(X, B)))).
fof(goal, conjecture, ! [A, B, C] : ((subset(A, B) & subset(B, C)) => subset(A, C))).
