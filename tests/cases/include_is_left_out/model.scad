include <a.scad>
cube(1);