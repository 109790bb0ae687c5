<TeXmacs|2.1>

<style|letterhead>

<\body>
<sender|Marta Lindqvist|4 Harbour Lane|Visby>

<on|3 May 2026>

Dear Jonas,

thank you for the drawings of the mill. I have gone through them twice, and there are three things that I would ask you to look at before we order the timber:

<\enumerate>
<item>the beam over the wheel is <em|one foot short>;

<item>there is no door on the side of the lake;

<item>the roof needs a second pair of rafters.
</enumerate>

Everything else is as we said. If you can send the new sheets by Friday, the boat can take them along.

<closing|Yours|Marta>
</body>
