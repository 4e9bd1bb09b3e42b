% status: Theorem
% uses: goal
fof(goal, conjecture, p | ~ p).
