<assign|em|<macro|x|*<arg|x>*>>

<assign|section|<macro|title|<center|<strong|<arg|title>>>>>
