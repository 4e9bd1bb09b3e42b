% status: Theorem
% uses: goal
fof(goal, conjecture, (~ (p & q)) <=> (~ p | ~ q)).
