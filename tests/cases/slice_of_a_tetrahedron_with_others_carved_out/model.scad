module t(s) polyhedron([[0, 0, 0], [s, 0, 0], [0, s, 0], [0, 0, s]], [[0, 1, 2], [0, 3, 1], [1, 3, 2], [0, 2, 3]]);
difference() { t(1); t(0.5); intersection() { t(0.4); t(0.3); } }
