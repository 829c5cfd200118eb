'''Stands for the Python module in this repository; where the decoder is installed, smclp.py itself is here under this name.'''

import os

_source = os.path.join(os.path.dirname(os.path.abspath(__file__)), '..', '..', 'python', 'smclp.py')
with open(_source, 'rb') as _file:
    exec(compile(_file.read(), _source, 'exec'))
