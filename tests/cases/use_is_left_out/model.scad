cube(1);
use <a.scad>