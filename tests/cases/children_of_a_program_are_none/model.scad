echo($children);
children();