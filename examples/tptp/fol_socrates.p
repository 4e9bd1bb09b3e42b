% status: Theorem
% uses: f_man f_mortal goal
fof(f_man, axiom, man(socrates)).
fof(f_mortal, axiom, ! [X] : (man(X) => mortal(X))).
fof(goal, conjecture, mortal(socrates)).
