% The same network by a verified solver: the package interval of GNU Octave, its `\` on matrices of intervals.
%
%     octave --no-gui --quiet interval.m NAME.net
%
% It reads what the benchmark's word `network` prints, and prints the time of solving and of the currents of all
% elements in nanoseconds. The clock starts when the matrix stands: putting it together entry by entry is slow here.
pkg load interval
file = fopen (argv (){1});
nodes = fscanf (file, "%d", 1);
list = fscanf (file, "%d", [5, Inf])';
fclose (file);
from = list(:, 1) + 1;
to = list(:, 2) + 1;
inside = list(:, 2) < 65535;
siemens = infsup (list(:, 3) * 1e6) ./ infsup (list(:, 4));
volts = infsup (list(:, 5)) ./ infsup (1e9);
matrix = infsup (zeros (nodes));
right = infsup (zeros (nodes, 1));
for e = 1 : rows (list)
  a = from(e);
  matrix(a, a) = matrix(a, a) + siemens(e);
  right(a) = right(a) - siemens(e) * volts(e);
  if (inside(e))
    b = to(e);
    matrix(b, b) = matrix(b, b) + siemens(e);
    matrix(a, b) = matrix(a, b) - siemens(e);
    matrix(b, a) = matrix(b, a) - siemens(e);
    right(b) = right(b) + siemens(e) * volts(e);
  endif
endfor
% a node without an element has the potential 0
for k = setdiff (1 : nodes, [from; to]')
  matrix(k, k) = infsup (1);
endfor
start = tic ();
potentials = matrix \ right;
fall = potentials(from);
fall(inside) = fall(inside) - potentials(to(inside));
currents = siemens .* (fall + volts);
spent = double (tic () - start);
if (! all (isfinite (sup (currents))))
  exit (1);
endif
printf ("%d\n", spent * 1000);
