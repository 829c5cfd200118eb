'''
SM CLP (DMTF DSP0214): the commands that are typed on a server's serial console.

The decoder stacks on 'uart' and shows, over the very bytes, each line, its parts (verb, options and their
arguments, target, properties), and where a line is refused and why. What a line is, the library libsmclp says.
'''

from .pd import Decoder
