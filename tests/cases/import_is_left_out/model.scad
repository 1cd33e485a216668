
import(1);