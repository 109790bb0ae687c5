<\body>
<assign|sender|<macro|name|street|town|<with|par-mode|right|<document|<strong|<arg|name>>|<arg|street>|<arg|town>>>>>

<assign|on|<macro|day|<with|par-mode|right|font-shape|italic|<arg|day>>>>

<assign|closing|<macro|words|name|<with|par-left|20spc|<document|<arg|words>,|<strong|<arg|name>>>>>>
</body>
