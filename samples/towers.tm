<TeXmacs|0.3.4>

<style|generic>

<\body>
<expand|center|<expand|strong|Three towers, August 1999>>

<expand|section|Saturday>

We met at <apply|tower|Holmside|six bells>, and by noon we had rung at <apply|tower|Fernley|eight bells> too.

<\expand|itemize>
<item>The key hangs in the mill.

<item>Soft shoes for the <apply|em|old> stairs.
</expand>

<expand|section|Sunday>

<apply|expand|tower|Ashby|five bells> was locked.
</body>

<\initial>
<\collection>
<associate|tower|<macro|place|bells|<expand|em|<arg|place>> (<arg|bells>)>>
</collection>
</initial>
