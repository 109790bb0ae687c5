<TeXmacs|2.1>

<style|exam>

<\body>
<title|Levers and pulleys>

<class|Physics, second year>

<date|14 March 2026, 60 minutes>

Answer all questions. A lever arm is written <math|a> or <math|b>.

<\question>
<points|2>Say what a lever is.
</question>

<\question>
<points|3>A load of <math|6> kg hangs at <math|a=<frac|1|2>> m. Where must 2 kg hang?

<\choices>
<item>At <math|1> m.

<item>At <math|<frac|3|2>> m.
</choices>

<\hint>
The products are equal.
</hint>
</question>

<\exercise*>
<points|1>Name the man in the picture: <blank>
</exercise*>

<strong|Together <total-points> points.>
</body>
