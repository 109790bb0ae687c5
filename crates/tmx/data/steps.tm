<TeXmacs|2.1>

<style|generic>

<\body>
  <section|First steps>

  An <em|important> note, \Pquoted\Q.

  <\itemize>
    <item>one

    <item>two
  </itemize>
</body>

<\initial>
  <\collection>
    <associate|page-medium|paper>
  </collection>
</initial>
