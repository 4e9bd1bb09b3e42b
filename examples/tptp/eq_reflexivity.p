% status: Theorem
% uses: goal
fof(goal, conjecture, ! [X] : f(X) = f(X)).
