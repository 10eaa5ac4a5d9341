function m(){"use asm";function f(a,b){a=a|0;b=b|0;return a+b|0;}return f;}
