linear_extrude(1) polyhedron();
