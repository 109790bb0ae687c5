<assign|letter-header|<macro|x|<with|par-mode|right|par-first|0mcell|<arg|x>>>>
<assign|sender|<value|letter-header>>
<assign|address|<value|letter-header>>
<assign|my-address|<value|letter-header>>
<assign|return-address|<value|letter-header>>
<assign|letter-date|<macro|x|<with|par-mode|right|par-first|0mcell|<next-line><eval|<value|?x>>>>>
<assign|dated|<value|letter-date>>
<assign|today|<macro|[today]>>
<assign|destination|<macro|x|<with|par-first|0mcell|<arg|x>>>>
<assign|recipient|<value|destination>>
<assign|opening|<macro|x|<with|par-first|0mcell|<next-line><eval|<value|?x>>>>>
<assign|closing|<macro|x|<with|par-left|<plus|<value|par-left>|30spc>|par-first|0mcell|<next-line><eval|<value|?x>>>>>
<assign|signature|<macro|x|<with|par-left|<plus|<value|par-left>|30spc>|par-first|0mcell|<next-line><next-line>\
    <eval|<value|?x>>>>>

# What stands after the signature
<assign|:after|<quote|<with|par-first|0mcell|<next-line><value|:name> <eval|<value|:flat-x>>>>>
<assign|cc|<macro|x|<with|:name|cc:|<eval|<value|:after>>>>>
<assign|encl|<macro|x|<with|:name|encl:|<eval|<value|:after>>>>>
<assign|ps|<macro|x|<with|:name|P.S.|<eval|<value|:after>>>>>
