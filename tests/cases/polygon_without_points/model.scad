linear_extrude(1) polygon();
